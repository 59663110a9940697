---- MODULE Factorial ----
EXTENDS Integers, Sequences, TLC

(* A procedure that calls itself: its parameter is kept on the stack.

--algorithm Factorial
variable product = 1;

procedure Multiply(n = 0)
begin
  Enter:
    if n > 1 then
      call Multiply(n - 1);
      product := n * product;
    end if;
  Leave: return;
end procedure;
begin
  Start: call Multiply(5);
  Check: assert product = 120;
end algorithm
*)
====
