# Structure constants and commutator terms by GAP, in the program's order of roots and with its signs: rising height, then the
# lexicographically greater coefficient vector first; N_rs = p + 1 on every extraspecial pair.
# GAP's Chevalley basis is rescaled by signs to have these.
SetPrintFormattingStatus("*stdout*", false);

LieData := function(type, n)
  local L, C, P, order, m, coefficients, D, found, i, j, k, basis, entries, constant, sign;
  L := SimpleLieAlgebra(type, n, Rationals);
  C := ChevalleyBasis(L);
  P := PositiveRoots(RootSystem(L));
  m := Length(P);
  coefficients := List(P, v -> SolutionMat(SimpleSystem(RootSystem(L)), v));
  order := [1..m];
  Sort(order, function(a, b)
    if Sum(coefficients[a]) <> Sum(coefficients[b]) then return Sum(coefficients[a]) < Sum(coefficients[b]); fi;
    return coefficients[a] > coefficients[b]; end);
  coefficients := coefficients{order};
  D := rec(m := m, full := Concatenation(coefficients, -coefficients));   # place m + k is -r_k
  found := NewDictionary(coefficients[1], true);
  for i in [1..2*m] do AddDictionary(found, D.full[i], i); od;
  D.find := function(v) local x; x := LookupDictionary(found, v); if x = fail then return 0; fi; return x; end;
  basis := Concatenation(C[1]{order}, C[2]{order});
  entries := List(basis, x -> ExtRepOfObj(x));
  constant := function(i, j) local t, e, place;
    t := D.find(D.full[i] + D.full[j]);
    if t = 0 then return 0; fi;
    e := ExtRepOfObj(basis[i]*basis[j]);
    place := PositionProperty(entries[t], z -> z <> 0);
    return e[place]/entries[t][place]; end;
  D.N := List([1..2*m], i -> List([1..2*m], j -> constant(i, j)));
  sign := List([1..2*m], i -> 0);
  for i in [1..n] do sign[i] := 1; sign[m+i] := 1; od;
  for k in [n+1..m] do
    for i in [1..m] do
      j := D.find(coefficients[k] - coefficients[i]);
      if j > 0 and j <= m and i < j then
        sign[k] := SignInt(D.N[i][j])*sign[i]*sign[j]; sign[m+k] := sign[k]; break;
      fi;
    od;
  od;
  for i in [1..2*m] do for j in [1..2*m] do
    k := D.find(D.full[i] + D.full[j]);
    if k > 0 then D.N[i][j] := D.N[i][j]*sign[i]*sign[j]*sign[k]; fi;
  od; od;
  return D;
end;

# the terms of the roots at places r and s: [place, i, j, C_ijrs]
CommutatorTerms := function(D, r, s)
  local value, chain, terms, exponents, i, j, t, c;
  value := function(a, b) local x, y;
    x := D.find(a); y := D.find(b);
    if x = 0 or y = 0 or a = -b then return 0; fi;
    return D.N[x][y]; end;
  chain := function(a, b, k) return Product([0..k-1], q -> value(a, q*a+b))/Factorial(k); end;
  terms := [];
  for exponents in [[1,1],[1,2],[2,1],[1,3],[3,1],[2,3],[3,2]] do
    i := exponents[1]; j := exponents[2];
    t := D.find(i*D.full[r] + j*D.full[s]);
    if t > 0 then
      if j = 1 then c := chain(D.full[r], D.full[s], i);
      elif i = 1 then c := (-1)^j*chain(D.full[s], D.full[r], j);
      elif i = 3 then c := chain(D.full[r]+D.full[s], D.full[r], 2)/3;
      else c := -2*chain(D.full[s]+D.full[r], D.full[s], 2)/3; fi;
      Add(terms, [t, i, j, c]);
    fi;
  od;
  return terms;
end;

# the positive root group over the field of p elements: generator k is x_k(1)
RootGroup := function(D, p)
  local F, collector, f, r, s, word, terms, term;
  F := FreeGroup(IsSyllableWordsFamily, D.m, "x");
  f := GeneratorsOfGroup(F);
  collector := CombinatorialCollector(F, ListWithIdenticalEntries(D.m, p));
  for r in [1..D.m] do for s in [r+1..D.m] do
    word := f[s];
    terms := ShallowCopy(CommutatorTerms(D, r, s));
    Sort(terms, function(a, b) return a[1] < b[1]; end);
    for term in terms do
      if (term[4] mod p) <> 0 then word := word * f[term[1]]^((term[4]*(-1)^term[2]) mod p); fi;
    od;
    SetConjugate(collector, s, r, word);
  od; od;
  return GroupByRws(collector);
end;
