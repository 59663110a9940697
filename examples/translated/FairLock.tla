---- MODULE FairLock ----
EXTENDS Integers

(* A lock. Who waits for it gets it, as `Acquire` is strongly fair; `Idle` is left out, so nobody need ever want it.

--algorithm FairLock
variable locked = FALSE;

fair process Client \in 1..3
begin
  Idle:-
    while TRUE do
      skip;
      Acquire:+ await ~locked; locked := TRUE;
      Critical: skip;
      Release: locked := FALSE;
    end while;
end process;
end algorithm
*)
\* BEGIN TRANSLATION
VARIABLES locked, pc

vars == <<locked, pc>>

ProcSet == 1..3

Init ==
  /\ locked = FALSE
  /\ pc = [self \in ProcSet |-> "Idle"]

Idle(self) ==
  /\ (pc[self] = "Idle")
  /\ IF TRUE
     THEN
       /\ (TRUE)
       /\ pc' = [pc EXCEPT ![self] = "Acquire"]
     ELSE
       /\ pc' = [pc EXCEPT ![self] = "Done"]
  /\ UNCHANGED <<locked>>

Acquire(self) ==
  /\ (pc[self] = "Acquire")
  /\ (~locked)
  /\ locked' = TRUE
  /\ pc' = [pc EXCEPT ![self] = "Critical"]

Critical(self) ==
  /\ (pc[self] = "Critical")
  /\ (TRUE)
  /\ pc' = [pc EXCEPT ![self] = "Release"]
  /\ UNCHANGED <<locked>>

Release(self) ==
  /\ (pc[self] = "Release")
  /\ locked' = FALSE
  /\ pc' = [pc EXCEPT ![self] = "Idle"]

Client(self) ==
  \/ Idle(self)
  \/ Acquire(self)
  \/ Critical(self)
  \/ Release(self)

Terminating ==
  /\ (\A self \in ProcSet : pc[self] = "Done")
  /\ UNCHANGED vars

Next ==
  \/ \E self \in (1..3) : Client(self)
  \/ Terminating

Spec ==
  /\ Init
  /\ [][Next]_vars
  /\ \A self \in (1..3) : WF_vars((pc[self] \notin {"Idle"}) /\ Client(self))
  /\ \A self \in (1..3) : SF_vars(Acquire(self))

Termination == <>(\A self \in ProcSet : pc[self] = "Done")
\* END TRANSLATION
====
