/* By hand. The device that the store works on, of words, of numbers or of coded words, and where the
 * index stands that it finds values by, NULL if it has none. */
typedef struct ee_device Device, Numbers, EccNumbers;
typedef struct ee_index *Lookup;
