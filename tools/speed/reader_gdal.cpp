// Reads well-known text by GDAL, and prints how many microseconds that took and the count of
// vertices.
#include <chrono>
#include <cstdio>
#include <fstream>
#include <iterator>
#include <ogr_api.h>
#include <string>

int main() {
    std::ifstream file("given");
    std::string text((std::istreambuf_iterator<char>(file)), {});
    char *rest = text.data();
    OGRGeometryH line = nullptr;
    auto start = std::chrono::steady_clock::now();
    OGR_G_CreateFromWkt(&rest, nullptr, &line);
    auto took = std::chrono::duration_cast<std::chrono::microseconds>(
        std::chrono::steady_clock::now() - start);
    std::printf("%lld %d\n", (long long)took.count(), line ? OGR_G_GetPointCount(line) : 0);
}
