# What is measured in GAP beside the program: products of two elements, of words of letters. The scripts that measure give the lines:
#   FullElements, Matrices or Words first, and then Products or Empty again and again, each on all of `factors`
Read("lie_data.g");
factors := [];;
Generators := RandomSource(IsMersenneTwister, 1);;

# 200 pairs of full elements of the positive root group, for the collector for p-groups of GAP's kernel
FullElements := function(type, rank, p)
  local D, group;
  D := LieData(type, rank);
  group := Pcgs(RootGroup(D, p));
  factors := List([1..200], i -> List([1,2], j -> PcElementByExponents(group, List([1..D.m], k -> Random(Generators, [1..p-1])))));
end;

# a matrix of whole numbers below 2^15 from a fixed sequence, as the program bench_dense makes it
Filled := function(seed, p, n)
  local state, entry;
  state := seed;
  entry := function() state := (state*1103515245 + 12345) mod 2^32; return QuoInt(state, 2^17)*One(GF(p)); end;
  return ImmutableMatrix(GF(p), List([1..n], i -> List([1..n], j -> entry())));
end;

# 20 times the same two matrices of dimension n
Matrices := function(p, n)
  factors := ListWithIdenticalEntries(20, [Filled(1, p, n), Filled(2, p, n)]);
end;

# the sum of the entries of their product
Total := function() return Sum(factors[1][1]*factors[1][2], row -> Sum(row, IntFFE)); end;

# 200 words of 40 letters of all kinds, as in data.sh, by their matrices of dimension 7 over G_2 with five elements
Words := function()
  local L, C, basis, vectors, one, letter, n, torus, kinds;
  L := SimpleLieAlgebra("G", 2, Rationals);
  C := ChevalleyBasis(L);
  basis := Basis(HighestWeightModule(L, [1,0]));
  vectors := List([C[1], C[2]], part -> List(part, e -> MatrixOfAction(basis, e)));
  one := One(GF(5));
  letter := function(side, k, a) local E; E := vectors[side][k]; return Sum([0..3], i -> a^i*(E^i/Factorial(i))*one); end;
  n := List([1,2], i -> letter(1, i, one)*letter(2, i, -one)*letter(1, i, one));
  torus := function(i, a) return letter(1, i, a)*letter(2, i, -a^-1)*letter(1, i, a)*n[i]^-1; end;
  kinds := [
    ListX([1,2], [1..6], [1..4], function(side, k, a) return letter(side, k, a*one); end),
    Concatenation(n, List(n, Inverse)),
    ListX([1..4], [1..4], function(a, b) return torus(1, a*one)*torus(2, b*one); end) ];
  kinds := List(kinds, matrices -> List(matrices, m -> ImmutableMatrix(GF(5), m)));
  factors := List([1..200], i -> List([1..40], j -> Random(Generators, Random(Generators, kinds))));
end;

Products := function()
  local it, product, k;
  for it in factors do
    product := it[1];
    for k in [2..Length(it)] do product := product*it[k]; od;
  od;
end;

# the same without the product
Empty := function()
  local it, product, k;
  for it in factors do
    product := it[1];
    for k in [2..Length(it)] do product := it[k]; od;
  od;
end;
