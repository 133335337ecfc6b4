(* The kernel matrix in OCaml: the same input, steps and output as those of kernels/matrix.c. *)

let left = Array.make 10000 0
let right = Array.make 10000 0
let product = Array.make 10000 0

let () =
  let rounds = input_byte stdin in
  let width = input_byte stdin in
  let sum = ref 0 in
  for i = 0 to (width * width) - 1 do
    left.(i) <- i land 15;
    right.(i) <- i land 7
  done;
  for round = 0 to rounds - 1 do
    for row = 0 to width - 1 do
      for column = 0 to width - 1 do
        let entry = ref round in
        for i = 0 to width - 1 do
          entry := !entry + (left.((row * width) + i) * right.((i * width) + column))
        done;
        product.((row * width) + column) <- !entry;
        sum := ((!sum * 31) + !entry) land 0xffffffff
      done
    done
  done;
  Printf.printf "%d\n" !sum
