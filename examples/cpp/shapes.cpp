// Keeps shapes, and adds their areas by a virtual function. docs/guide/compiling-cpp.md says how it is compiled.
#include <algorithm>
#include <memory>
#include <string>
#include <vector>

#define EXPORT(name) extern "C" __attribute__((export_name(#name)))
extern "C" __attribute__((import_module("host"), import_name("emit"))) void emit(const void *bytes, unsigned length);

struct Shape {
  virtual ~Shape() = default;
  virtual long long area() const = 0;
};

struct Square : Shape {
  long long side;
  explicit Square(long long side) : side(side) {}
  long long area() const override { return side * side; }
};

struct Strip : Shape {
  long long length, width;
  Strip(long long length, long long width) : length(length), width(width) {}
  long long area() const override { return length * width; }
};

static std::vector<std::unique_ptr<Shape>> shapes;

EXPORT(square) void square(long long side) { shapes.push_back(std::make_unique<Square>(side)); }
EXPORT(strip) void strip(long long length, long long width) { shapes.push_back(std::make_unique<Strip>(length, width)); }

// Says the areas, the least first, and answers their sum.
EXPORT(sum) long long sum() {
  std::sort(shapes.begin(), shapes.end(), [](auto &a, auto &b) { return a->area() < b->area(); });
  long long areas = 0;
  for (auto &shape : shapes) {
    std::string line = std::to_string(shape->area()) + "\n";
    emit(line.data(), line.size());
    areas += shape->area();
  }
  return areas;
}
