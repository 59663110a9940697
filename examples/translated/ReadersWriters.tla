---- MODULE ReadersWriters ----
EXTENDS Integers
CONSTANTS Readers, Writers

(* Many read at once, one alone writes.

--algorithm ReadersWriters
variables reading = 0, writing = FALSE;

process Reader \in Readers
begin
  StartReading: await ~writing; reading := reading + 1;
  Read: skip;
  StopReading: reading := reading - 1; goto StartReading;
end process;

process Writer \in Writers
begin
  StartWriting: await ~writing /\ reading = 0; writing := TRUE;
  Write: skip;
  StopWriting: writing := FALSE; goto StartWriting;
end process;
end algorithm
*)
\* BEGIN TRANSLATION
VARIABLES reading, writing, pc

vars == <<reading, writing, pc>>

ProcSet == Readers \cup Writers

Init ==
  /\ reading = 0
  /\ writing = FALSE
  /\ pc = [self \in ProcSet |-> CASE (self \in Readers) -> "StartReading" [] (self \in Writers) -> "StartWriting"]

StartReading(self) ==
  /\ (pc[self] = "StartReading")
  /\ (~writing)
  /\ reading' = (reading + 1)
  /\ pc' = [pc EXCEPT ![self] = "Read"]
  /\ UNCHANGED <<writing>>

Read(self) ==
  /\ (pc[self] = "Read")
  /\ (TRUE)
  /\ pc' = [pc EXCEPT ![self] = "StopReading"]
  /\ UNCHANGED <<reading, writing>>

StopReading(self) ==
  /\ (pc[self] = "StopReading")
  /\ reading' = (reading - 1)
  /\ pc' = [pc EXCEPT ![self] = "StartReading"]
  /\ UNCHANGED <<writing>>

Reader(self) ==
  \/ StartReading(self)
  \/ Read(self)
  \/ StopReading(self)

StartWriting(self) ==
  /\ (pc[self] = "StartWriting")
  /\ ((~writing) /\ (reading = 0))
  /\ writing' = TRUE
  /\ pc' = [pc EXCEPT ![self] = "Write"]
  /\ UNCHANGED <<reading>>

Write(self) ==
  /\ (pc[self] = "Write")
  /\ (TRUE)
  /\ pc' = [pc EXCEPT ![self] = "StopWriting"]
  /\ UNCHANGED <<reading, writing>>

StopWriting(self) ==
  /\ (pc[self] = "StopWriting")
  /\ writing' = FALSE
  /\ pc' = [pc EXCEPT ![self] = "StartWriting"]
  /\ UNCHANGED <<reading>>

Writer(self) ==
  \/ StartWriting(self)
  \/ Write(self)
  \/ StopWriting(self)

Terminating ==
  /\ (\A self \in ProcSet : pc[self] = "Done")
  /\ UNCHANGED vars

Next ==
  \/ \E self \in Readers : Reader(self)
  \/ \E self \in Writers : Writer(self)
  \/ Terminating

Spec ==
  /\ Init
  /\ [][Next]_vars

Termination == <>(\A self \in ProcSet : pc[self] = "Done")
\* END TRANSLATION
====
