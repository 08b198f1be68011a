PC := add(PC,1#8) & X := read(M,slice(I,7,0)) with 7:0=0
PC := add(PC,1#8) & A := X & X := read(M,slice(I,7,0)) with 7:0=1
PC := add(PC,1#8) & A := add(A,X)
PC := add(PC,1#8) & M[slice(I,7,0)] := A with 7:0=2
PC := slice(I,7,0) with 7:0=4
