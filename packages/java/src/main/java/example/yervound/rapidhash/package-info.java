/**
 * Provides the rapidhash family of 64-bit hashes in plain Java: {@link example.yervound.rapidhash.Rapidhash} hashes a
 * message at once, {@link example.yervound.rapidhash.RapidhashStream} in pieces.
 */
package example.yervound.rapidhash;
