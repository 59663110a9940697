---- MODULE Factorial ----
EXTENDS Integers, Sequences, TLC

(* A procedure that calls itself: its parameter is kept on the stack.

--algorithm Factorial
variable product = 1;

procedure Multiply(n = 0)
begin
  Enter:
    if n > 1 then
      call Multiply(n - 1);
      Combine: product := n * product;
    end if;
  Leave: return;
end procedure;
begin
  Start: call Multiply(5);
  Check: assert product = 120;
end algorithm
*)
\* BEGIN TRANSLATION
VARIABLES product, pc, stack, n

vars == <<product, pc, stack, n>>

Init ==
  /\ product = 1
  /\ n = 0
  /\ stack = <<>>
  /\ pc = "Start"

Enter ==
  /\ (pc = "Enter")
  /\ IF n > 1
     THEN
       /\ stack' = (<<[procedure |-> "Multiply", pc |-> "Combine", n |-> n]>> \o stack)
       /\ n' = (n - 1)
       /\ pc' = "Enter"
     ELSE
       /\ pc' = "Leave"
       /\ UNCHANGED <<stack, n>>
  /\ UNCHANGED <<product>>

Combine ==
  /\ (pc = "Combine")
  /\ product' = (n * product)
  /\ pc' = "Leave"
  /\ UNCHANGED <<stack, n>>

Leave ==
  /\ (pc = "Leave")
  /\ pc' = Head(stack).pc
  /\ n' = Head(stack).n
  /\ stack' = Tail(stack)
  /\ UNCHANGED <<product>>

Multiply ==
  \/ Enter
  \/ Combine
  \/ Leave

Start ==
  /\ (pc = "Start")
  /\ stack' = (<<[procedure |-> "Multiply", pc |-> "Check", n |-> n]>> \o stack)
  /\ n' = 5
  /\ pc' = "Enter"
  /\ UNCHANGED <<product>>

Check ==
  /\ (pc = "Check")
  /\ (Assert(product = 120, "Failure of assertion."))
  /\ pc' = "Done"
  /\ UNCHANGED <<product, stack, n>>

Terminating ==
  /\ (pc = "Done")
  /\ UNCHANGED vars

Next ==
  \/ Multiply
  \/ Start
  \/ Check
  \/ Terminating

Spec ==
  /\ Init
  /\ [][Next]_vars

Termination == <>(pc = "Done")
\* END TRANSLATION
====
