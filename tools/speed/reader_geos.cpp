// Reads well-known text by GEOS, and prints how many microseconds that took and the count of
// vertices.
#include <chrono>
#include <cstdio>
#include <fstream>
#include <geos_c.h>
#include <iterator>
#include <string>

int main() {
    std::ifstream file("given");
    std::string text((std::istreambuf_iterator<char>(file)), {});
    initGEOS(nullptr, nullptr);
    GEOSWKTReader *reader = GEOSWKTReader_create();
    auto start = std::chrono::steady_clock::now();
    GEOSGeometry *line = GEOSWKTReader_read(reader, text.c_str());
    auto took = std::chrono::duration_cast<std::chrono::microseconds>(
        std::chrono::steady_clock::now() - start);
    std::printf("%lld %d\n", (long long)took.count(), line ? GEOSGetNumCoordinates(line) : 0);
}
