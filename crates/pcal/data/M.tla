---- MODULE M ----
EXTENDS Integers
(*
--algorithm Inc
variables x = 0;
begin
  A: x := x + 1;
end algorithm
*)
====
