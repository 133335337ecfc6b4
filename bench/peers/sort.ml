(* The kernel sort in OCaml: the same input, steps and output as those of kernels/sort.c. *)

let numbers = Array.make 1000 0
let counts = Array.make 64 0

let () =
  let rounds = input_byte stdin in
  let random = ref 1 and sum = ref 0 in
  for _ = 1 to rounds do
    for i = 0 to 63 do
      counts.(i) <- 0
    done;
    for i = 0 to 999 do
      random := ((!random * 1103515245) + 12345) land 0xffffffff;
      numbers.(i) <- (!random lsr 16) land 1023;
      let counted = numbers.(i) land 63 in
      counts.(counted) <- counts.(counted) + 1
    done;
    for i = 1 to 999 do
      let number = numbers.(i) and place = ref i in
      while !place > 0 && numbers.(!place - 1) > number do
        numbers.(!place) <- numbers.(!place - 1);
        decr place
      done;
      numbers.(!place) <- number
    done;
    for i = 0 to 999 do
      sum := ((!sum * 31) + numbers.(i)) land 0xffffffff
    done;
    for i = 0 to 63 do
      sum := ((!sum * 31) + counts.(i)) land 0xffffffff
    done
  done;
  Printf.printf "%d\n" !sum
