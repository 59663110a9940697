---- MODULE Peterson ----
EXTENDS Integers

(* Mutual exclusion of two processes, without any lock.

--algorithm Peterson
variables flag = [i \in {0, 1} |-> FALSE], turn = 0;

process Contender \in {0, 1}
begin
  Rest:
    while TRUE do
      skip;
      Raise: flag[self] := TRUE;
      Yield: turn := 1 - self;
      Wait: await ~flag[1 - self] \/ turn = self;
      Critical: skip;
      Lower: flag[self] := FALSE;
    end while;
end process;
end algorithm
*)
\* BEGIN TRANSLATION
VARIABLES flag, turn, pc

vars == <<flag, turn, pc>>

ProcSet == {0, 1}

Init ==
  /\ flag = [i \in {0, 1} |-> FALSE]
  /\ turn = 0
  /\ pc = [self \in ProcSet |-> "Rest"]

Rest(self) ==
  /\ (pc[self] = "Rest")
  /\ IF TRUE
     THEN
       /\ (TRUE)
       /\ pc' = [pc EXCEPT ![self] = "Raise"]
     ELSE
       /\ pc' = [pc EXCEPT ![self] = "Done"]
  /\ UNCHANGED <<flag, turn>>

Raise(self) ==
  /\ (pc[self] = "Raise")
  /\ flag' = [flag EXCEPT ![self] = TRUE]
  /\ pc' = [pc EXCEPT ![self] = "Yield"]
  /\ UNCHANGED <<turn>>

Yield(self) ==
  /\ (pc[self] = "Yield")
  /\ turn' = (1 - self)
  /\ pc' = [pc EXCEPT ![self] = "Wait"]
  /\ UNCHANGED <<flag>>

Wait(self) ==
  /\ (pc[self] = "Wait")
  /\ ((~flag[1 - self]) \/ (turn = self))
  /\ pc' = [pc EXCEPT ![self] = "Critical"]
  /\ UNCHANGED <<flag, turn>>

Critical(self) ==
  /\ (pc[self] = "Critical")
  /\ (TRUE)
  /\ pc' = [pc EXCEPT ![self] = "Lower"]
  /\ UNCHANGED <<flag, turn>>

Lower(self) ==
  /\ (pc[self] = "Lower")
  /\ flag' = [flag EXCEPT ![self] = FALSE]
  /\ pc' = [pc EXCEPT ![self] = "Rest"]
  /\ UNCHANGED <<turn>>

Contender(self) ==
  \/ Rest(self)
  \/ Raise(self)
  \/ Yield(self)
  \/ Wait(self)
  \/ Critical(self)
  \/ Lower(self)

Terminating ==
  /\ (\A self \in ProcSet : pc[self] = "Done")
  /\ UNCHANGED vars

Next ==
  \/ \E self \in {0, 1} : Contender(self)
  \/ Terminating

Spec ==
  /\ Init
  /\ [][Next]_vars

Termination == <>(\A self \in ProcSet : pc[self] = "Done")
\* END TRANSLATION
====
