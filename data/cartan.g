# Compares the Cartan matrices and the numbers of roots of the headers in groups/ with GAP's simple Lie algebras and with Bourbaki's plates.
#
#   gap -q -b data/cartan.g </dev/null
#
# A header's matrix is worked out from its lines `root` and `coroot`: row i has the pairings <a_i, a_j^v>. Of GAP not the function CartanMatrix is asked,
# whose order of indices would have to be believed, but the algebra: with Chevalley's basis e_i, f_i, h_i = [e_i, f_i] the bracket [h_j, e_i] is
# <a_i, a_j^v> e_i. GAP's own numbering differs from Bourbaki's in F_4 alone. A plate has the simple roots as vectors, and <a, b^v> = 2 (a, b)/(b, b).
#
# Source: Bourbaki, Lie Groups and Lie Algebras, chapters 4 to 6, plates I to IX.
Folder := Concatenation(INPUT_FILENAME(){[1 .. Length(INPUT_FILENAME()) - Length("cartan.g")]}, "groups/");
Faults := 0;
Expect := function(is_so, name, what)
  if not is_so then Faults := Faults + 1; Print(name, ": ", what, "\n"); fi;
end;

# --- a header: its simple roots and coroots, and what its comments tell

LinesBehind := function(lines, word)
  return List(Filtered(lines, it -> StartsWith(it, Concatenation(word, " "))), it -> it{[Length(word)+2 .. Length(it)]});
end;

Numbers := text -> List(SplitString(text, "", " "), Int);

Header := function(name)
  local lines, told, type;
  lines := SplitString(StringFile(Concatenation(Folder, name)), "\n");
  told := LinesBehind(lines, "# type")[1];
  type := SplitString(told{[1 .. Position(told, ';')-1]}, "", " ");
  return rec(
    types := List(Filtered(type, it -> it <> "none"), it -> [it{[1]}, Int(it{[3 .. Length(it)]})]),
    count := Int(SplitString(told{[Position(told, ';')+1 .. Length(told)]}, "", " ")[1]),
    roots := List(LinesBehind(lines, "root"), Numbers),
    coroots := List(LinesBehind(lines, "coroot"), Numbers),
    matrix := Filtered(List(LinesBehind(lines, "#"), Numbers), row -> not fail in row));
end;

# --- Bourbaki's plates

Unit := function(n, i)
  local v;
  v := ListWithIdenticalEntries(n, 0);
  v[i] := 1;
  return v;
end;

Steps := n -> List([1 .. n-1], i -> Unit(n, i) - Unit(n, i+1));

Plate := function(letter, n)
  local e;
  if letter = "A" then return Steps(n+1); fi;
  if letter = "B" then return Concatenation(Steps(n), [Unit(n, n)]); fi;
  if letter = "C" then return Concatenation(Steps(n), [2*Unit(n, n)]); fi;
  if letter = "D" then return Concatenation(Steps(n), [Unit(n, n-1) + Unit(n, n)]); fi;
  if letter = "F" then return [[0, 1, -1, 0], [0, 0, 1, -1], [0, 0, 0, 1], [1, -1, -1, -1]/2]; fi;
  if letter = "G" then return [[1, -1, 0], [-2, 1, 1]]; fi;
  e := List([1 .. 8], i -> Unit(8, i));
  return Concatenation([[1, -1, -1, -1, -1, -1, -1, 1]/2, e[1] + e[2]], List([1 .. n-2], i -> e[i+1] - e[i]));
end;

PlateMatrix := function(letter, n)
  local simple;
  simple := Plate(letter, n);
  return List(simple, a -> List(simple, b -> 2*(a*b)/(b*b)));
end;

# --- GAP's algebras; B_1 and C_1 are A_1, and D_3 is A_3, whose middle root is the first of D_3

GapAlgebra := function(letter, n)
  if letter = "D" and n = 3 then return rec(L := SimpleLieAlgebra("A", 3, Rationals), order := [2, 1, 3]); fi;
  if letter = "F" then return rec(L := SimpleLieAlgebra("F", 4, Rationals), order := [2, 4, 3, 1]); fi;
  return rec(L := SimpleLieAlgebra(letter, n, Rationals), order := [1 .. n]);
end;

# the numbers c_ij with [h_j, e_i] = c_ij e_i
AlgebraMatrix := function(A)
  local basis, e, h, simple;
  basis := ChevalleyBasis(A.L);
  simple := List(SimpleSystem(RootSystem(A.L)), v -> Position(PositiveRoots(RootSystem(A.L)), v)){A.order};
  e := basis[1]{simple};
  h := List(simple, k -> basis[1][k]*basis[2][k]);
  return List(e, x -> List(h, y -> First([-3 .. 3], c -> y*x = c*x)));
end;

Known := rec();
TypeOf := function(letter, n)
  local name, A;
  name := Concatenation(letter, String(n));
  if not IsBound(Known.(name)) then
    A := GapAlgebra(letter, n);
    Known.(name) := rec(matrix := AlgebraMatrix(A), roots := 2*Length(PositiveRoots(RootSystem(A.L))));
    Expect(Known.(name).matrix = PlateMatrix(letter, n), name, "GAP's matrix isn't that of the plate");
  fi;
  return Known.(name);
end;

# the matrix of several types, one after the other along the diagonal
Diagonal := function(matrices)
  local whole, at, m, i;
  if matrices = [] then return []; fi;
  whole := NullMat(Sum(matrices, Length), Sum(matrices, Length));
  at := 0;
  for m in matrices do
    for i in [1 .. Length(m)] do whole[at+i]{[at+1 .. at+Length(m)]} := m[i]; od;
    at := at + Length(m);
  od;
  return whole;
end;

Check := function(name)
  local H, types, pairings;
  H := Header(name);
  types := List(H.types, it -> TypeOf(it[1], it[2]));
  pairings := List(H.roots, a -> List(H.coroots, b -> a*b));
  Expect(H.matrix = pairings, name, "the comment has another matrix than the lines");
  Expect(pairings = Diagonal(List(types, it -> it.matrix)), name, "the matrix isn't that of the type");
  Expect(H.count = Sum(types, it -> it.roots), name, "the number of roots isn't that of the type");
end;

Names := Filtered(DirectoryContents(Folder), it -> it[1] <> '.');
Perform(Names, Check);
Print(Length(Names), " headers, ", Faults, " faults\n");
FORCE_QUIT_GAP(Minimum(Faults, 1));
