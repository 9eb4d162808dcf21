module yervound.example/rapidhash

go 1.19
