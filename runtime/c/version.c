/* The version of the library; tools/library gives it from the file VERSION. It is the one object of the archive that is not
 * proved, and nothing else calls it. */
const char *kullneyra_version(void);

const char *kullneyra_version(void) {
    return KULLNEYRA_VERSION;
}
