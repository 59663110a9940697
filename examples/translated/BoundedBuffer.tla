---- MODULE BoundedBuffer ----
EXTENDS Integers, Sequences
CONSTANT Size

(* A producer and a consumer with a buffer of so many places between them.

--algorithm BoundedBuffer
variables buffer = <<>>, made = 0, used = 0;

macro Put(item)
begin
  await Len(buffer) < Size;
  buffer := Append(buffer, item);
end macro;

macro Take(place)
begin
  await buffer # <<>>;
  place := Head(buffer);
  buffer := Tail(buffer);
end macro;

process Producer = "producer"
begin
  Produce:
    while made < 10 do
      made := made + 1;
      Store: Put(made);
    end while;
end process;

process Consumer = "consumer"
variable got = 0;
begin
  Consume:
    while TRUE do
      Take(got);
      Use: used := used + got;
    end while;
end process;
end algorithm
*)
\* BEGIN TRANSLATION
VARIABLES buffer, made, used, pc, got

vars == <<buffer, made, used, pc, got>>

ProcSet == {"producer"} \cup {"consumer"}

Init ==
  /\ buffer = <<>>
  /\ made = 0
  /\ used = 0
  /\ got = 0
  /\ pc = [self \in ProcSet |-> CASE (self = "producer") -> "Produce" [] (self = "consumer") -> "Consume"]

Produce ==
  /\ (pc["producer"] = "Produce")
  /\ IF made < 10
     THEN
       /\ made' = (made + 1)
       /\ pc' = [pc EXCEPT !["producer"] = "Store"]
     ELSE
       /\ pc' = [pc EXCEPT !["producer"] = "Done"]
       /\ UNCHANGED <<made>>
  /\ UNCHANGED <<buffer, used, got>>

Store ==
  /\ (pc["producer"] = "Store")
  /\ (Len(buffer) < Size)
  /\ buffer' = Append(buffer, made)
  /\ pc' = [pc EXCEPT !["producer"] = "Produce"]
  /\ UNCHANGED <<made, used, got>>

Producer ==
  \/ Produce
  \/ Store

Consume ==
  /\ (pc["consumer"] = "Consume")
  /\ IF TRUE
     THEN
       /\ (buffer # <<>>)
       /\ got' = Head(buffer)
       /\ buffer' = Tail(buffer)
       /\ pc' = [pc EXCEPT !["consumer"] = "Use"]
     ELSE
       /\ pc' = [pc EXCEPT !["consumer"] = "Done"]
       /\ UNCHANGED <<buffer, got>>
  /\ UNCHANGED <<made, used>>

Use ==
  /\ (pc["consumer"] = "Use")
  /\ used' = (used + got)
  /\ pc' = [pc EXCEPT !["consumer"] = "Consume"]
  /\ UNCHANGED <<buffer, made, got>>

Consumer ==
  \/ Consume
  \/ Use

Terminating ==
  /\ (\A self \in ProcSet : pc[self] = "Done")
  /\ UNCHANGED vars

Next ==
  \/ Producer
  \/ Consumer
  \/ Terminating

Spec ==
  /\ Init
  /\ [][Next]_vars

Termination == <>(\A self \in ProcSet : pc[self] = "Done")
\* END TRANSLATION
====
