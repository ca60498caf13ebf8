# The values of GAP in the table of the crate test_tables, one a line, in the program's order of roots and with its signs.
#   gap -q -b tables.g </dev/null >gap_values.txt
#   datum TYPE q m | rows of the Cartan matrix      root TYPE k | coefficients      const TYPE r s N_rs, where it isn't 0
#   prod TYPE q | a | b | c      the product of the elements a and b of the positive root group, with one entry a root
Read("lie_data.g");
Draws := RandomSource(IsMersenneTwister, 11);;
D := 0;; name := "";; cartan := [];;
RowText := row -> Concatenation(List(row, x -> Concatenation(String(x), " ")));

SignedNumber := function(m, place) if place <= m then return place; else return m - place; fi; end;

PrintRoots := function(name, D)
  local k, r, s;
  for k in [1..D.m] do Print("root ", name, " ", k, " | ", RowText(D.full[k]), "\n"); od;
  for r in [1..2*D.m] do for s in [r+1..2*D.m] do
    if D.N[r][s] <> 0 then Print("const ", name, " ", SignedNumber(D.m, r), " ", SignedNumber(D.m, s), " ", D.N[r][s], "\n"); fi;
  od; od;
end;

PrintProducts := function(name, D, q)
  local pc, k, a, b, c;
  pc := Pcgs(RootGroup(D, q));
  for k in [1..8] do
    a := List([1..D.m], i -> Random(Draws, [0..q-1]));
    b := List([1..D.m], i -> Random(Draws, [0..q-1]));
    c := ExponentsOfPcElement(pc, PcElementByExponents(pc, a)*PcElementByExponents(pc, b));
    Print("prod ", name, " ", q, " | ", RowText(a), "| ", RowText(b), "| ", RowText(c), "\n");
  od;
end;

for type in [["A",2,3],["A",3,5],["A",5,5],["B",3,5],["C",2,3],["C",3,5],["D",4,3],["G",2,5],["G",2,2],["G",2,3],["F",4,5],["F",4,2],["E",6,5],["E",7,3],["E",8,2]] do
  D := LieData(type[1], type[2]);
  name := Concatenation(type[1], String(type[2]));
  cartan := CartanMatrix(RootSystem(SimpleLieAlgebra(type[1], type[2], Rationals)));
  Print("datum ", name, " ", type[3], " ", D.m, " | ", JoinStringsWithSeparator(List(cartan, RowText), "/ "), "\n");
  if D.m <= 24 then PrintRoots(name, D); fi;
  PrintProducts(name, D, type[3]);
od;
QUIT;
