(* SPDX-License-Identifier: Apache-2.0 *)
(* Proves the goals of theorems by REAL_RING, each theorem's in a process of its own with a limit of processor time and of memory,
   and writes a line for each: the name, the seconds, the megabytes, and how it ended. HOL Light reads names in capitals as variables, and
   takes one phrase a line. *)
#load "unix.cma";;
prioritize_real();;
let peer_seconds = int_of_string (Sys.getenv "PEER_SECONDS");;
let peer_bytes = int_of_string (Sys.getenv "PEER_MEGABYTES") * 1048576;;
let peer_rows = Sys.getenv "PEER_ROWS";;
let peer_goals = ref ([]:term list);;
let peer_goal tm = peer_goals := tm :: !peer_goals;;
let peer_most () =
  let chan = open_in "/proc/self/status" in
  let rec look () = let l = input_line chan in if String.length l > 6 && String.sub l 0 6 = "VmHWM:" then Scanf.sscanf l "VmHWM: %d" (fun k -> k / 1024) else look () in
  let k = look () in close_in chan; k;;
let peer_prove tm = let th = REAL_RING tm in if concl th = tm && hyp th = [] then () else failwith "another theorem";;
let peer_child () =
  ignore (Sys.command (Printf.sprintf "prlimit --pid %d --cpu=%d --as=%d" (Unix.getpid ()) peer_seconds peer_bytes));
  let word = try List.iter peer_prove (List.rev !peer_goals); "proved" with Failure _ -> "open" | Out_of_memory -> "memory" | _ -> "error" in
  let chan = open_out (peer_rows ^ ".word") in
  Printf.fprintf chan "%d %s\n" (peer_most ()) word; close_out chan; exit 0;;
let peer_clock () = let t = Unix.times () in t.Unix.tms_cutime +. t.Unix.tms_cstime;;
let peer_theorem n =
  (try Sys.remove (peer_rows ^ ".word") with _ -> ());
  flush_all ();
  let begun = peer_clock () in
  let pid = Unix.fork () in
  if pid = 0 then peer_child () else begin
    ignore (Unix.waitpid [] pid);
    let (most, word) = try let chan = open_in (peer_rows ^ ".word") in let l = input_line chan in close_in chan; Scanf.sscanf l "%d %s" (fun k w -> (k, w)) with _ -> (0, "time") in
    let chan = open_out_gen [Open_append; Open_creat] 0o644 peer_rows in
    Printf.fprintf chan "%s\t%.3f\t%d\t%s\n" n (peer_clock () -. begun) most word; close_out chan;
    peer_goals := []
  end;;
