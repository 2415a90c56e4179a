(* Searches that are wrong as the variable WRONG says: they write other texts than the right ones, or none. *)

open Judge

let rec changed letter change = function
  | [] -> []
  | line :: more ->
      match String.split_on_char ' ' line with
      | first :: words when first = letter -> String.concat " " (first :: change words) :: more
      | _ -> line :: changed letter change more

let rec last_changed change = function [] -> [] | [ n ] -> [ change n ] | word :: more -> word :: last_changed change more
let plus n word = Big_int_Z.(string_of_big_int (add_int_big_int n (big_int_of_string word)))
let more = plus 1
let less = plus (-1)
let but_last lines = List.rev (match List.rev lines with _ :: (_ :: _ as more) -> more | lines -> lines)

let wrong lines =
  match Sys.getenv "WRONG" with
  | "a node less" when List.exists (fun it -> it.[0] = 'u') lines -> changed "p" (last_changed less) (but_last lines)
  | "off by one" -> changed "y" (last_changed more) (changed "d" (function v :: d :: w -> v :: more d :: w | it -> it) lines)
  | "another flow" -> changed "f" (last_changed more) lines
  | "another value" -> changed "s" (last_changed more) lines
  | "no flow" when (List.hd lines).[0] = 's' -> [ "s 0" ]
  | "another source" -> changed "t" (function v :: k -> more v :: k | it -> it) lines
  | "nothing" -> []
  | "an exception" -> failwith "wrong"
  | "no memory" -> raise Out_of_memory
  | "no stack" -> raise Stack_overflow
  | _ -> lines

let of_finding = function Shown lines -> Shown (wrong lines) | Better lines -> Better (wrong lines)
let max i x = of_finding (Right.max i x)
let min i x = of_finding (Right.min i x)
let infeasible i = of_finding (Right.infeasible i)
let paths g l = wrong (Right.paths g l)
