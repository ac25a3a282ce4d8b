/* Runs a fuzzer without libFuzzer. An example that is compiled with -DALONE includes this file after its
 * LLVMFuzzerTestOneInput.
 */

static void run_file(const char *path)
{
    static uint8_t data[1 << 16];
    FILE *file = fopen(path, "rb");

    if (!file) {
        perror(path);
        exit(1);
    }
    LLVMFuzzerTestOneInput(data, fread(data, 1, sizeof data, file));
    fclose(file);
}

/* Runs the files that are named, or 2,000 inputs of `size` random bytes, at most 400. */
static int run_alone(int argc, char **argv, size_t size)
{
    uint8_t data[400];
    uint32_t word = 1;

    for (int number = 1; number < argc; number++)
        run_file(argv[number]);
    for (int number = 0; argc == 1 && number < 2000; number++) {
        for (size_t place = 0; place < size; place++) {
            word ^= word << 13; /* xorshift32 */
            word ^= word >> 17;
            word ^= word << 5;
            data[place] = word >> 24;
        }
        LLVMFuzzerTestOneInput(data, size);
    }
    puts("no fault");
    return 0;
}
