---- MODULE ReadersWriters ----
EXTENDS Integers
CONSTANTS Readers, Writers

(* Many read at once, one alone writes.

--algorithm ReadersWriters
variables reading = 0, writing = FALSE;

process Reader \in Readers
begin
  StartReading: await ~writing; reading := reading + 1;
  Read: skip;
  StopReading: reading := reading - 1; goto StartReading;
end process;

process Writer \in Writers
begin
  StartWriting: await ~writing /\ reading = 0; writing := TRUE;
  Write: skip;
  StopWriting: writing := FALSE; goto StartReading;
end process;
end algorithm
*)
====
