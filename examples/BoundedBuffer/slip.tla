---- MODULE BoundedBuffer ----
EXTENDS Integers, Sequences
CONSTANT Size

(* A producer and a consumer with a buffer of so many places between them.

--algorithm BoundedBuffer
variables buffer = <<>>, made = 0, used = 0;

macro Put(item)
begin
  await Len(buffer) < Size;
  buffer := Append(buffer, item);
end macro;

macro Take(place)
begin
  await buffer # <<>>;
  place := Head(buffer);
  buffer := Tail(buffer);
end macro;

process Producer = "producer"
begin
  Produce:
    while made < 10 do
      made := made + 1;
      Store: Put(made);
    end while;
end process;

process Consumer = "consumer"
variable got = 0;
begin
  Consume:
    while TRUE do
      Take(used + got);
      Use: used := used + got;
    end while;
end process;
end algorithm
*)
====
