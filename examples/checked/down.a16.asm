PC := add(PC,1#8) & ACC := zext(slice(I,7,0),16) with 7:0=1
PC := add(PC,1#8) & M[slice(I,7,0)] := ACC with 7:0=0
PC := add(PC,1#8) & ACC := read(M,slice(I,7,0)) with 7:0=3
PC := select(eq(ACC,0#16),slice(I,7,0),add(PC,1#8)) with 7:0=6
PC := add(PC,1#8) & ACC := sub(ACC,read(M,slice(I,7,0))) with 7:0=0
PC := slice(I,7,0) with 7:0=3
PC := add(PC,1#8) & M[slice(I,7,0)] := ACC with 7:0=3
PC := slice(I,7,0) with 7:0=7
