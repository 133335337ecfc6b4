(* The kernel tree in OCaml: the same input, steps and output as those of kernels/tree.c. *)

type node = Nothing | Node of { key : int; mutable left : node; mutable right : node }

let depth_of added key root =
  let place = ref root and depth = ref 0 in
  while !place != added do
    incr depth;
    match !place with
    | Nothing -> assert false
    | Node node ->
        if key < node.key then begin
          if node.left == Nothing then node.left <- added;
          place := node.left
        end
        else begin
          if node.right == Nothing then node.right <- added;
          place := node.right
        end
  done;
  !depth

let () =
  let rounds = input_byte stdin in
  let random = ref 1 and sum = ref 0 in
  for _ = 1 to rounds do
    let root = Node { key = 16384; left = Nothing; right = Nothing } in
    for _ = 1 to 8000 do
      random := ((!random * 1103515245) + 12345) land 0xffffffff;
      let key = (!random lsr 16) land 32767 in
      let added = Node { key; left = Nothing; right = Nothing } in
      sum := ((!sum * 31) + depth_of added key root) land 0xffffffff
    done
  done;
  Printf.printf "%d\n" !sum
