package kullneyra

// #include <kullneyra.h>
import "C"

// LibraryVersion is the version of the library that is linked.
func LibraryVersion() string { return C.GoString(C.kullneyra_version()) }
