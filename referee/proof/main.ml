(* Gives the bytes of files to the judge, and prints what it says. Statuses and messages are those of docs/JUDGING.md. *)

external end_with_4 : unit -> unit = "judge_ends_with_4"

let () = end_with_4 ()

exception Usage of string
exception Device of string

let usage =
  "    judge max INSTANCE SOLUTION CUT            judge infeasible INSTANCE CUT\n\
  \    judge min INSTANCE SOLUTION POTENTIALS     judge paths GRAPH QUERY LABELS\n\
   without a certificate, which is written:\n\
  \    judge certify-max INSTANCE SOLUTION [CUT]  judge certify-infeasible INSTANCE [CUT]\n\
  \    judge certify-min INSTANCE SOLUTION [POTENTIALS]\n\
  \    judge certify-paths GRAPH DISTANCES [LABELS]\n\
   What a refusal means: docs/JUDGING.md"

(* The system's number of an error. *)
external number_of : Unix.error -> int = "judge_number_of"

(* f (), again if a signal interrupted it. *)
let rec again f = try f () with Unix.Unix_error (EINTR, _, _) -> again f

(* f (), or a message that names what failed. *)
let trying name what f =
  try f () with Unix.Unix_error (error, _, _) ->
    raise (Device (Printf.sprintf "%s: cannot be %s: %s (os error %d)" name what (Unix.error_message error) (number_of error)))

let opened name = name, trying name "opened" (fun () -> again (fun () -> Unix.openfile name [ Unix.O_RDONLY ] 0))
let bytes = Array.init 256 Z.of_int
let piece = Bytes.create 65536

(* The judge's state after a file, of which no more is read once there is a report. *)
let rec read command state (name, file) =
  if Judge.report_of state <> None then state
  else
    match trying name "read" (fun () -> again (fun () -> Unix.read file piece 0 (Bytes.length piece))) with
    | 0 -> Judge.text_ended command state
    | n ->
        let state = ref state in
        for k = 0 to n - 1 do state := Judge.next_byte command !state bytes.(Char.code (Bytes.get piece k)) done;
        read command !state (name, file)

let after_texts command names =
  let files = List.map opened names in
  let state = List.fold_left (read command) (Judge.begun_run command) files in
  List.iter (fun (_, file) -> Unix.close file) files;
  state

(* The report after texts that the command doesn't have, which are empty. *)
let report command state = Option.get (Judge.report_of (Judge.text_ended command (Judge.text_ended command state)))
let judge command names = report command (after_texts command names), None

let gave_up = [ [ Judge.Word "g"; Judge.Word "search" ] ]

(* What the search has found, which isn't always a part of the report. *)
let found = ref []
let noted lines_of finding = found := lines_of finding; finding
let flows = noted (function Judge.Shown lines | Judge.Better lines -> lines)
let labels = noted Fun.id

(* What is likely a slip: a file that is read isn't written over, and a name that looks like an option names none. *)
let refuse_slips read made =
  let file name =
    match Unix.stat name with
    | { st_kind = S_REG; st_dev; st_ino; _ } -> Some (st_dev, st_ino)
    | _ | exception Unix.Unix_error _ -> None in
  if String.starts_with ~prefix:"--" made then raise (Usage (made ^ " looks like an option"));
  if List.exists (fun name -> file name <> None && file name = file made) read then
    raise (Usage (made ^ " is read, so it isn't written"))

(* The first line of the report is printed. The file gets the others, if there are any, or by `found-` what was found, for
   kernel.py. A search that fails is a wrong one. *)
let certify word command (names, made) =
  Option.iter (refuse_slips names) made;
  let state = after_texts command names in
  let yes, lines =
    try report command state with
    | (Out_of_memory | Stack_overflow) as gone -> raise gone
    | _ -> false, gave_up in
  let file = if word.[0] = 'f' then List.rev_map (fun line -> [ Judge.Word line ]) (List.rev !found) else List.tl lines in
  (yes, [ List.hd lines ]), Option.map (fun name -> name, file) made

let rec write (name, file) text from =
  if from < Bytes.length text then
    write (name, file) text
      (from + trying name "written" (fun () -> again (fun () -> Unix.single_write file text from (Bytes.length text - from))))

(* The bytes of some lines, in pieces. *)
let written lines =
  let text = Buffer.create 65536 and pieces = ref [] in
  let word = function Judge.Word s -> s | Judge.Decimal n -> Z.to_string n in
  let cut () = if Buffer.length text > 0 then pieces := Buffer.to_bytes text :: !pieces; Buffer.clear text in
  List.iter (fun line ->
    Buffer.add_string text (String.concat " " (List.map word line) ^ "\n");
    if Buffer.length text > 60000 then cut ()) lines;
  cut ();
  List.rev !pieces

let print device pieces = List.iter (fun piece -> write device piece 0) pieces

let create name =
  name, trying name "created" (fun () -> again (fun () -> Unix.openfile name Unix.[ O_WRONLY; O_CREAT; O_TRUNC ] 0o666))

(* So many names to read, and perhaps one to write. *)
let parted count names =
  match List.filteri (fun k _ -> k < count) names, List.filteri (fun k _ -> k >= count) names with
  | read, [] when List.length read = count -> read, None
  | read, [ made ] -> read, Some made
  | _ -> raise (Usage usage)

(* Whether the bytes from k on are UTF-8. *)
let rec is_utf8 s k =
  let byte k = if k < String.length s then Char.code s.[k] else 0 in
  let are_tails count = List.for_all (fun j -> byte (k + j) land 0xC0 = 0x80) (List.init count succ) in
  let first = byte k and second = byte (k + 1) in
  let count = if first < 0x80 then 0 else if first < 0xE0 then 1 else if first < 0xF0 then 2 else 3 in
  k >= String.length s
  || (first < 0x80 || 0xC2 <= first && first <= 0xF4) && are_tails count
     && (first <> 0xE0 || second >= 0xA0) && (first <> 0xED || second < 0xA0)
     && (first <> 0xF0 || second >= 0x90) && (first <> 0xF4 || second < 0x90)
     && is_utf8 s (k + 1 + count)

let run command names =
  match command, names with
  | _ when not (List.for_all (fun name -> is_utf8 name 0) names) -> raise (Usage usage)
  | ("max" | "judge-max"), [ _; _; _ ] -> judge Judge.command_max names
  | ("min" | "judge-min"), [ _; _; _ ] -> judge Judge.command_min names
  | ("infeasible" | "judge-infeasible"), [ _; _ ] -> judge Judge.command_infeasible names
  | ("paths" | "judge-paths"), [ _; _; _ ] -> judge Judge.command_paths names
  | ("certify-max" | "found-max"), _ ->
      certify command (Judge.command_certify_max (fun i x -> flows (Search.max i x))) (parted 2 names)
  | ("certify-min" | "found-min"), _ ->
      certify command (Judge.command_certify_min (fun i x -> flows (Search.min i x))) (parted 2 names)
  | ("certify-infeasible" | "found-infeasible"), _ ->
      certify command (Judge.command_certify_infeasible (fun i -> flows (Search.infeasible i))) (parted 1 names)
  | ("certify-paths" | "found-paths"), _ ->
      certify command (Judge.command_certify_paths (fun g l -> labels (Search.paths g l))) (parted 2 names)
  | _ -> raise (Usage usage)

(* A file that is opened doesn't take the place of a standard device that is closed. *)
let keep_closed device =
  try ignore (Unix.fstat device) with Unix.Unix_error _ -> ignore (Unix.openfile "/dev/null" [ Unix.O_RDONLY ] 0)

(* What can't be said changes no status. *)
let complain status text =
  (try write ("standard error", Unix.stderr) (Bytes.of_string ("judge: " ^ text ^ "\n")) 0 with Device _ -> ());
  status

let status =
  try
    Sys.set_signal Sys.sigpipe Sys.Signal_ignore;
    Gc.(set { (get ()) with minor_heap_size = 1 lsl 20; space_overhead = 60 });
    List.iter keep_closed Unix.[ stdin; stdout; stderr ];
    let (yes, lines), file =
      match Array.to_list Sys.argv with _ :: command :: names -> run command names | _ -> raise (Usage usage) in
    let file = Option.map (fun (name, made) -> name, written made) file and output = written lines in
    (* All is there before any is printed, and room for what printing takes: memory can't be gone between. *)
    Gc.minor ();
    Option.iter (fun (name, made) -> if made <> [] then print (create name) made) file;
    print ("standard output", Unix.stdout) output;
    if yes then 0 else if lines = gave_up then 5 else 1
  with
  | Usage message -> complain 2 ("usage\n" ^ message)
  | Device message -> complain 3 ("device fault\njudge: " ^ message)
  | Out_of_memory | Stack_overflow -> complain 4 "out of memory"

(* What OCaml does before it ends, which isn't needed here, takes memory. *)
external end_with : int -> unit = "caml_sys_exit"

let () = end_with status
