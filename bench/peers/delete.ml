(* The kernel delete in OCaml: the same input, steps and output as those of kernels/delete.c. *)

type cell = { mutable first : cell; mutable second : cell }

let () =
  let n = input_byte stdin in
  let live = input_byte stdin * 4000 in
  let sum = ref 0 in
  let rec target = { first = target; second = target } in
  let kept = Array.make (live / 2) target in
  for i = 0 to (live / 4) - 1 do
    let cell = { first = target; second = target } in
    cell.second <- cell;
    kept.(i) <- cell
  done;
  for i = 0 to (n * n * n) - 1 do
    let cell = { first = target; second = target } in
    cell.first <- cell;
    if cell.first != cell.second then sum := ((!sum * 31) + i) land 0xffffffff
  done;
  if live > 0 && kept.(0).first == target then sum := (!sum + 1) land 0xffffffff;
  Printf.printf "%d\n" !sum
