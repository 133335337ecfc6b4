(* The kernel collatz in OCaml: the same input, steps and output as those of kernels/collatz.c. *)

let () =
  let last = input_byte stdin * 500 in
  let sum = ref 0 in
  for first = 1 to last do
    let number = ref first and steps = ref 0 in
    while !number <> 1 do
      if !number mod 2 = 0 then number := !number / 2 else number := (3 * !number) + 1;
      incr steps
    done;
    sum := ((!sum * 31) + !steps) land 0xffffffff
  done;
  Printf.printf "%d\n" !sum
