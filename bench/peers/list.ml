(* The kernel list in OCaml: the same input, steps and output as those of kernels/list.c. *)

type cell = Nothing | Cell of { value : int; next : cell }

let () =
  let rounds = input_byte stdin in
  let sum = ref 0 in
  for round = 0 to rounds - 1 do
    let first = ref Nothing in
    for i = 0 to 19999 do
      first := Cell { value = i lxor round; next = !first }
    done;
    let rec add = function
      | Nothing -> ()
      | Cell { value; next } ->
          sum := ((!sum * 31) + value) land 0xffffffff;
          add next
    in
    add !first
  done;
  Printf.printf "%d\n" !sum
