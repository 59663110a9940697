---- MODULE InsertionSort ----
EXTENDS Integers, Sequences, TLC

(* A list is sorted in its place, and is sorted at the end.

--algorithm InsertionSort
variables list \in {<<3, 1, 2>>, <<5, 4, 4, 1>>, <<>>}, next = 2, at = 0;

macro Swap(i, j)
begin
  list[i] := list[j] || list[j] := list[i];
end macro;
begin
  Outer:
    while next <= Len(list) do
      at := next;
      Inner:
        while at > 1 /\ list[at - 1] > list[at] do
          Swap(at - 1, at);
          at := at - 1;
        end while;
      Advance: next := next + 1;
    end while;
  Check: assert \A k \in 1..Len(list) - 1 : list[k] <= list[k + 1];
end algorithm
*)
\* BEGIN TRANSLATION
VARIABLES list, next, at, pc

vars == <<list, next, at, pc>>

Init ==
  /\ list \in {<<3, 1, 2>>, <<5, 4, 4, 1>>, <<>>}
  /\ next = 2
  /\ at = 0
  /\ pc = "Outer"

Outer ==
  /\ (pc = "Outer")
  /\ IF next <= Len(list)
     THEN
       /\ at' = next
       /\ pc' = "Inner"
     ELSE
       /\ pc' = "Check"
       /\ UNCHANGED <<at>>
  /\ UNCHANGED <<list, next>>

Inner ==
  /\ (pc = "Inner")
  /\ IF (at > 1) /\ (list[at - 1] > list[at])
     THEN
       /\ list' = [list EXCEPT ![at - 1] = list[at], ![at] = list[at - 1]]
       /\ at' = (at - 1)
       /\ pc' = "Inner"
     ELSE
       /\ pc' = "Advance"
       /\ UNCHANGED <<list, at>>
  /\ UNCHANGED <<next>>

Advance ==
  /\ (pc = "Advance")
  /\ next' = (next + 1)
  /\ pc' = "Outer"
  /\ UNCHANGED <<list, at>>

Check ==
  /\ (pc = "Check")
  /\ (Assert(\A k \in (1..(Len(list) - 1)) : list[k] <= list[k + 1], "Failure of assertion."))
  /\ pc' = "Done"
  /\ UNCHANGED <<list, next, at>>

Terminating ==
  /\ (pc = "Done")
  /\ UNCHANGED vars

Next ==
  \/ Outer
  \/ Inner
  \/ Advance
  \/ Check
  \/ Terminating

Spec ==
  /\ Init
  /\ [][Next]_vars

Termination == <>(pc = "Done")
\* END TRANSLATION
====
