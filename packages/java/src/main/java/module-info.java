/** The rapidhash family of 64-bit hashes. */
module example.yervound.rapidhash {
    exports example.yervound.rapidhash;
}
