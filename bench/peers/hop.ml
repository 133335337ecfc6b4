(* The kernel hop in OCaml: the same input, steps and output as those of kernels/hop.c. *)

type cell = Nothing | Cell of { mutable value : int; next : cell }

let rec read sum = function
  | Nothing -> sum
  | Cell { value; next } -> read (((sum * 31) + value) land 0xffffffff) next

let rec change = function
  | Nothing -> ()
  | Cell cell ->
      cell.value <- cell.value + 1;
      change cell.next

let () =
  let rounds = input_byte stdin * 10 in
  let sum = ref 0 and first = ref Nothing in
  for i = 0 to 4999 do
    first := Cell { value = i; next = !first }
  done;
  for _ = 1 to rounds do
    sum := read !sum !first;
    change !first
  done;
  Printf.printf "%d\n" !sum
