/* Adds two inputs, and says hello. docs/guide/compiling-c.md says how it is compiled. */
#define HOST(name) __attribute__((import_module("host"), import_name(#name)))
HOST(input) unsigned long long input(unsigned index);
HOST(put)   void put(unsigned long long word);
HOST(emit)  void emit(const void *bytes, unsigned length);

__attribute__((export_name("run"))) int run(void) {
  put(input(0) + input(1));
  emit("hello\n", 6);
  return 0;
}
