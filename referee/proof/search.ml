(* Searches certificates, and better flows. Nothing is proved of this file: the judge reads and tests what it writes. *)

module Integers = Z
open Judge
module Z = Integers
module Numbers = Map.Make (Int)

(* Nodes are those that occur, numbered from 0. Residual arc 2 k is arc k, and 2 k + 1 is arc k back. *)
type graph = {
  arcs : arc array;
  ids : int array;
  number : int Numbers.t;
  tails : int array;
  heads : int array;
  first : int array;  (* the residual arcs out of node v are out.(first.(v)) up to first.(v + 1) *)
  out : int array;
}

let size g = Array.length g.ids
let from g r = if r land 1 = 0 then g.tails.(r / 2) else g.heads.(r / 2)
let goal g r = if r land 1 = 0 then g.heads.(r / 2) else g.tails.(r / 2)
let number_of g id = Numbers.find_opt (Z.to_int id) g.number

(* For each node the places of its residual arcs, in their order: the arcs out of it, then those into it, back. *)
let incidence n tails heads =
  let first = Array.make (n + 2) 0 and out = Array.make (2 * Array.length tails) 0 in
  let count v = first.(v + 2) <- first.(v + 2) + 1 in
  Array.iter count tails;
  Array.iter count heads;
  for v = 2 to n + 1 do first.(v) <- first.(v) + first.(v - 1) done;
  let put v r = out.(first.(v + 1)) <- r; first.(v + 1) <- first.(v + 1) + 1 in
  Array.iteri (fun k v -> put v (2 * k)) tails;
  Array.iteri (fun k v -> put v (2 * k + 1)) heads;
  first, out

(* The graph of a network, and of other nodes. *)
let graph_of (network : network) others =
  let arcs = Array.of_list network.arcs in
  let number = ref Numbers.empty and count = ref 0 and ids = ref [] in
  let numbered it = let id = Z.to_int it in
    let add v = incr count; number := Numbers.add id v !number; ids := id :: !ids; v in
    match Numbers.find_opt id !number with Some v -> v | None -> add !count in
  let tails = Array.map (fun a -> numbered a.tail) arcs in
  let heads = Array.map (fun a -> numbered a.head) arcs in
  List.iter (fun id -> ignore (numbered id)) others;
  let first, out = incidence !count tails heads in
  { arcs; ids = Array.of_list (List.rev !ids); number = !number; tails; heads; first; out }

(* ---- Flows *)

let amounts_of (x : flow) = Array.of_list (List.rev (List.rev_map snd x))
let room g x r = let a = g.arcs.(r / 2) in if r land 1 = 0 then Z.sub a.cap x.(r / 2) else Z.sub x.(r / 2) a.low
let has_room g x r = Z.sign (room g x r) > 0
let push x n r = x.(r / 2) <- (if r land 1 = 0 then Z.add else Z.sub) x.(r / 2) n

(* As much as fits along some residual arcs, at most so much. *)
let push_all g x most path = let n = List.fold_left (fun n r -> Z.min n (room g x r)) most path in List.iter (push x n) path; n

(* The nodes that are reached from some over residual arcs with room, in order, and by node the arc to it, -1 for the first ones,
   or -2. *)
let reached g x sources =
  let via = Array.make (size g) (-2) and queue = Array.make (size g) 0 and count = ref 0 and next = ref 0 in
  let reach v r = if via.(v) = -2 then (via.(v) <- r; queue.(!count) <- v; incr count) in
  List.iter (fun v -> reach v (-1)) sources;
  while !next < !count do
    let v = queue.(!next) in
    incr next;
    for j = g.first.(v) to g.first.(v + 1) - 1 do if has_room g x g.out.(j) then reach (goal g g.out.(j)) g.out.(j) done
  done;
  via, Array.sub queue 0 !count

(* The residual arcs from one node to another, each found before the next. *)
let path_of g via start v = let rec back v path = if v = start then path else back (from g via.(v)) (via.(v) :: path) in back v []

let line word numbers = String.concat " " (word :: List.map Z.to_string numbers)

(* A line for each item, below one that counts them. (The standard map needs a stack as deep as the list is long.) *)
let listed word (network : network) line_of items =
  line word [ network.nodes; Z.of_int (List.length items) ] :: List.rev (List.rev_map line_of items)

let cut_of g network nodes =
  let ids = Array.map (fun v -> g.ids.(v)) nodes in
  Array.sort compare ids;
  Shown (listed "p cut" network (fun id -> line "u" [ Z.of_int id ]) (Array.to_list ids))

(* A flow with its value or cost. One out of range, which no text can claim, is written as 0. *)
let solution_of g x value =
  let entry k n = line "f" [ g.arcs.(k).tail; g.arcs.(k).head; n ] in
  let value = if Z.leq (Z.abs value) most_value then value else Z.zero in
  Better (line "s" [ value ] :: Array.to_list (Array.mapi entry x))

let cost_of g x =
  let total = ref Z.zero in
  Array.iteri (fun k n -> total := Z.add !total (Z.mul g.arcs.(k).cost n)) x;
  !total

(* A cut of the nodes that can be reached; or more along one path. *)
let max (i : max_instance) (x : flow) =
  let g = graph_of i.max_network [ i.source; i.sink ] and x = amounts_of x in
  let source = Option.get (number_of g i.source) and sink = Option.get (number_of g i.sink) in
  let via, nodes = reached g x [ source ] in
  if via.(sink) = -2 then cut_of g i.max_network nodes
  else begin
    let path = path_of g via source sink in
    ignore (push_all g x (room g x (List.hd path)) path);
    let net = ref Z.zero in
    Array.iteri (fun k n ->
      if g.tails.(k) = source then net := Z.add !net n;
      if g.heads.(k) = source then net := Z.sub !net n) x;
    solution_of g x !net
  end

(* A cycle of residual arcs, of negative cost. *)
exception Cycle of int list

(* Bellman and Ford's labels from 0 everywhere, with Tarjan's disassembly: the nodes are a tree, in preorder, below a root with
   the number n. If a node gets a lesser label, those below it leave the tree; if the arc comes from one of them, it closes a
   cycle of negative cost. *)
let labels_of g x =
  let n = size g in
  let label = Array.make (n + 1) Z.zero and via = Array.make (n + 1) (-1) and depth = Array.make (n + 1) 1 in
  let after = Array.init (n + 1) (fun v -> if v = n then 0 else v + 1) in
  let before = Array.init (n + 1) (fun v -> if v = 0 then n else v - 1) in
  depth.(n) <- 0;
  let queue = Queue.create () and queued = Array.make n true in
  for v = 0 to n - 1 do Queue.add v queue done;
  let cost r = let c = g.arcs.(r / 2).cost in if r land 1 = 0 then c else Z.neg c in
  let leave v u r =
    let last = ref after.(v) in
    while depth.(!last) > depth.(v) do
      if !last = u then raise (Cycle (r :: path_of g via v u));
      depth.(!last) <- -1;
      last := after.(!last)
    done;
    if u = v then raise (Cycle [ r ]);
    after.(before.(v)) <- !last;
    before.(!last) <- before.(v) in
  let lower r u v it =
    if depth.(v) > 0 then leave v u r;
    label.(v) <- it; via.(v) <- r; depth.(v) <- depth.(u) + 1;
    after.(v) <- after.(u); before.(v) <- u; before.(after.(u)) <- v; after.(u) <- v;
    if not queued.(v) then (queued.(v) <- true; Queue.add v queue) in
  let lowers u r = has_room g x r && Z.lt (Z.add label.(u) (cost r)) label.(goal g r) in
  let scan u =
    for j = g.first.(u) to g.first.(u + 1) - 1 do
      let r = g.out.(j) in
      if lowers u r then lower r u (goal g r) (Z.add label.(u) (cost r))
    done in
  (* The nodes of the queue, and those that they lower in turn, each before those that it lowers, but on cycles (Goldberg and
     Radzik). In the rounds 1, 2, 4, 8 and so on those that they reach stand for those that they lower: so without cycles one
     round is enough. *)
  let seen = Array.make n 0 and next = Array.make n 0 in
  let in_order round =
    let order = ref [] and is_whole = round land (round - 1) = 0 in
    let rec visit stack = function
      | v when seen.(v) < round -> seen.(v) <- round; next.(v) <- g.first.(v); go_on (v :: stack)
      | _ -> go_on stack
    and go_on = function
      | [] -> ()
      | u :: below when next.(u) = g.first.(u + 1) -> order := u :: !order; go_on below
      | u :: _ as stack ->
          let r = g.out.(next.(u)) in
          next.(u) <- next.(u) + 1;
          if (if is_whole then has_room g x r else lowers u r) then visit stack (goal g r) else go_on stack in
    Queue.iter (fun v -> if queued.(v) && depth.(v) > 0 then visit [] v else queued.(v) <- false) queue;
    Queue.clear queue;
    !order in
  let rec rounds k =
    List.iter (fun u -> if queued.(u) then (queued.(u) <- false; if depth.(u) > 0 then scan u)) (in_order k);
    if not (Queue.is_empty queue) then rounds (k + 1) in
  rounds 1;
  label

(* Potentials, or less cost along one cycle. *)
let min (i : min_instance) (x : flow) =
  let g = graph_of i.min_network [] and x = amounts_of x in
  match labels_of g x with
  | label ->
      let nodes = List.filter (fun v -> Z.sign label.(v) <> 0) (List.init (size g) Fun.id) in
      let nodes = List.sort (fun v w -> compare g.ids.(v) g.ids.(w)) nodes in
      Shown (listed "p pot" i.min_network (fun v -> line "y" [ Z.of_int g.ids.(v); Z.neg label.(v) ]) nodes)
  | exception Cycle path ->
      ignore (push_all g x (room g x (List.hd path)) path);
      solution_of g x (cost_of g x)

(* For each node the least number of residual arcs to a node that sends too much, or n. *)
let heights_of g x more =
  let n = size g in
  let height = Array.make n n and queue = Queue.create () in
  let reach v it = if height.(v) = n then (height.(v) <- it; Queue.add v queue) in
  Array.iteri (fun v it -> if Z.sign it < 0 then reach v 0) more;
  while not (Queue.is_empty queue) do
    let v = Queue.pop queue in
    for j = g.first.(v) to g.first.(v + 1) - 1 do
      let r = g.out.(j) in
      if has_room g x (r lxor 1) then reach (goal g r) (height.(v) + 1)
    done
  done;
  height

(* Pushes what nodes have to send more along arcs that go down by 1 in height (Goldberg and Tarjan), until no node that sends too
   much can be reached. Nodes go in waves, each from the highest down, and are raised for the next wave if something is left at
   them. Heights are counted anew when that takes no more than the work since. *)
let rec push_down g x more =
  let n = size g in
  let height = heights_of g x more and next = Array.sub g.first 0 n and waiting = Array.make n [] in
  let at = ref (-1) and top = ref (-1) and work = ref 0 in
  let wait v =
    let h = height.(v) in
    if h < n then (waiting.(h) <- v :: waiting.(h); top := Stdlib.max !top h) in
  let send v r =
    let w = goal g r and amount = Z.min more.(v) (room g x r) in
    let is_new = Z.sign more.(w) <= 0 in
    push x amount r;
    more.(v) <- Z.sub more.(v) amount;
    more.(w) <- Z.add more.(w) amount;
    if is_new && Z.sign more.(w) > 0 then wait w in
  let above least r = if has_room g x r then Stdlib.min least (height.(goal g r) + 1) else least in
  let raise_up v =
    let degree = g.first.(v + 1) - g.first.(v) in
    height.(v) <- Array.fold_left above n (Array.sub g.out g.first.(v) degree);
    next.(v) <- g.first.(v);
    work := !work + degree in
  let is_down v r = height.(v) = height.(goal g r) + 1 && has_room g x r in
  (* Whether what comes to a node can go on, or stay; if not the node is raised, so nothing is sent there to come back. *)
  let leads_on v =
    while next.(v) < g.first.(v + 1) && not (is_down v g.out.(next.(v))) do next.(v) <- next.(v) + 1 done;
    Z.sign more.(v) < 0 || next.(v) < g.first.(v + 1) || (raise_up v; false) in
  let empty v =
    while Z.sign more.(v) > 0 && next.(v) < g.first.(v + 1) do
      let r = g.out.(next.(v)) in
      if is_down v r && leads_on (goal g r) then send v r else next.(v) <- next.(v) + 1
    done;
    if Z.sign more.(v) > 0 then (raise_up v; wait v) in
  Array.iteri (fun v it -> if Z.sign it > 0 then wait v) more;
  while Stdlib.max !at !top >= 0 && !work <= n + Array.length g.out do
    incr work;
    if !at < 0 then (at := !top; top := -1)
    else match waiting.(!at) with
    | [] -> decr at
    | v :: rest -> waiting.(!at) <- rest; empty v
  done;
  if Stdlib.max !at !top >= 0 then push_down g x more

(* A feasible flow, or the set of nodes that can be reached from those that have to send more. *)
let infeasible (i : min_instance) =
  let g = graph_of i.min_network (List.rev_map fst i.supplies) in
  let x = Array.map (fun a -> a.low) g.arcs and more = Array.make (size g) Z.zero in
  let add v amount = more.(v) <- Z.add more.(v) amount in
  List.iter (fun (id, supply) -> add (Option.get (number_of g id)) supply) i.supplies;
  Array.iteri (fun k a -> add g.tails.(k) (Z.neg a.low); add g.heads.(k) a.low) g.arcs;
  push_down g x more;
  let are_sources sign = List.filter (fun v -> Z.sign more.(v) = sign) (List.init (size g) Fun.id) in
  match are_sources 1, are_sources (-1) with
  | [], [] -> solution_of g x (cost_of g x)
  | [], _ -> cut_of g i.min_network (Array.init (size g) Fun.id)
  | sources, _ -> cut_of g i.min_network (snd (reached g x sources))

(* ---- Distances *)

(* For each block the labels that tight arcs reach from its source; up to the first block that has others. *)
let paths (network : network) (l : labelling) =
  let g = graph_of network [] in
  let label = Array.make (size g) Z.zero and mark = Array.make (size g) 0 in
  let block number b =
    let to_reach = 2 * number + 1 and queue = Queue.create () and lines = ref [] and count = ref 0 in
    let note id d = Option.iter (fun v -> label.(v) <- d; mark.(v) <- to_reach) (number_of g id) in
    List.iter (fun l -> note l.id l.dist) b.labels;
    let reach v = mark.(v) <- to_reach + 1; Queue.add v queue in
    Option.iter (fun v -> label.(v) <- Z.zero; reach v) (number_of g b.start);
    while not (Queue.is_empty queue) do
      let v = Queue.pop queue in
      let j = ref g.first.(v) in
      while !j < g.first.(v + 1) && g.out.(!j) land 1 = 0 do
        let k = g.out.(!j) / 2 in
        let w = g.heads.(k) in
        incr j;
        if mark.(w) = to_reach && Z.equal (Z.add label.(v) g.arcs.(k).cost) label.(w) then begin
          reach w;
          incr count;
          lines := line "d" [ Z.of_int g.ids.(w); label.(w); Z.of_int g.ids.(v) ] :: !lines
        end
      done
    done;
    line "t" [ b.start; Z.of_int !count ] :: List.rev !lines, !count = List.length b.labels in
  let rec all number done_ = function
    | [] -> number, done_
    | b :: more -> let lines, is_whole = block number b in all (number + 1) (List.rev_append lines done_) (if is_whole then more else []) in
  let count, lines = all 0 [] l.blocks in
  line "p dist" [ network.nodes; Z.of_int count ] :: List.rev lines
