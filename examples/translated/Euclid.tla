---- MODULE Euclid ----
EXTENDS Integers, TLC

(* The greatest common divisor of two numbers, by differences.

--algorithm Euclid {
  variables first \in 1..20, second \in 1..20, u = first, v = second;
  {
    Loop:
      while (u # 0) {
        if (u < v) { u := v || v := u };
        Subtract: u := u - v
      };
    Check:
      assert first % v = 0 /\ second % v = 0
  }
}
*)
\* BEGIN TRANSLATION
VARIABLES first, second, u, v, pc

vars == <<first, second, u, v, pc>>

Init ==
  /\ first \in (1..20)
  /\ second \in (1..20)
  /\ u = first
  /\ v = second
  /\ pc = "Loop"

Loop ==
  /\ (pc = "Loop")
  /\ IF u # 0
     THEN
       /\ IF u < v
          THEN
            /\ u' = v
            /\ v' = u
          ELSE
            /\ UNCHANGED <<u, v>>
       /\ pc' = "Subtract"
     ELSE
       /\ pc' = "Check"
       /\ UNCHANGED <<u, v>>
  /\ UNCHANGED <<first, second>>

Subtract ==
  /\ (pc = "Subtract")
  /\ u' = (u - v)
  /\ pc' = "Loop"
  /\ UNCHANGED <<first, second, v>>

Check ==
  /\ (pc = "Check")
  /\ (Assert(((first % v) = 0) /\ ((second % v) = 0), "Failure of assertion."))
  /\ pc' = "Done"
  /\ UNCHANGED <<first, second, u, v>>

Terminating ==
  /\ (pc = "Done")
  /\ UNCHANGED vars

Next ==
  \/ Loop
  \/ Subtract
  \/ Check
  \/ Terminating

Spec ==
  /\ Init
  /\ [][Next]_vars

Termination == <>(pc = "Done")
\* END TRANSLATION
====
