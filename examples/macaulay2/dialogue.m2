-- Asks Macaulay2's package FourTiTwo, with the programs of the folder that FOLDER names, and prints what it is given: rows in
-- rising order, and of a row and its negative the greater one.
programPaths#"4ti2" = getenv "FOLDER" | "/"
needsPackage "FourTiTwo"

ordered = M -> sort entries M
upToSign = M -> sort apply(entries M, row -> max(row, -row))
binomials = I -> sort apply(flatten entries gens I, f -> max(f, -f))

twistedCubic = matrix "1,1,1,1;1,2,3,4"
print upToSign toricGraver twistedCubic

R = QQ[a..d]
print binomials toricGraver(twistedCubic, R)

tables = matrix "1,1,1,0,0,0,0,0,0;0,0,0,1,1,1,0,0,0;0,0,0,0,0,0,1,1,1;1,0,0,1,0,0,1,0,0;0,1,0,0,1,0,0,1,0;0,0,1,0,0,1,0,0,1"
print upToSign toricGraver tables

print ordered hilbertBasis transpose syz twistedCubic
print ordered hilbertBasis matrix "1,1,-2"

-- A lattice in place of a matrix is not supported.
print try ordered hilbertBasis(twistedCubic, InputType => "lattice") else "no lattices"
