// Paints polygons by GDAL's rasterizer into a picture of as many pixels and map units as `words` begins with.
#include <fstream>
#include <gdal.h>
#include <gdal_alg.h>
#include <ogr_api.h>
#include <string>
#include <vector>

int main() {
    GDALAllRegister();
    int width, height;
    std::ifstream("words") >> width >> height;
    std::vector<OGRGeometryH> polygons;
    std::ifstream file("given");
    std::string line;
    std::getline(file, line);
    while (std::getline(file, line)) {
        std::string text = line.substr(1, line.size() - 2);
        char *rest = text.data();
        OGRGeometryH polygon = nullptr;
        if (OGR_G_CreateFromWkt(&rest, nullptr, &polygon))
            return 1;
        polygons.push_back(polygon);
    }
    GDALDatasetH image = GDALCreate(GDALGetDriverByName("MEM"), "", width, height, 1, GDT_Byte, nullptr);
    double transform[] = {0, 1, 0, double(height), 0, -1};
    GDALSetGeoTransform(image, transform);
    int band = 1;
    std::vector<double> ones(polygons.size(), 1);
    GDALRasterizeGeometries(image, 1, &band, polygons.size(), polygons.data(), nullptr, nullptr,
                            ones.data(), nullptr, nullptr, nullptr);
    std::vector<unsigned char> pixels(width * height);
    if (GDALRasterIO(GDALGetRasterBand(image, 1), GF_Read, 0, 0, width, height, pixels.data(), width,
                     height, GDT_Byte, 0, 0))
        return 1;
    std::string picture = "P6\n" + std::to_string(width) + " " + std::to_string(height) + "\n255\n";
    for (unsigned char pixel : pixels)
        picture += pixel ? std::string("\0\0\377", 3) : std::string("\377\377\377", 3);
    std::ofstream("picture") << picture;
}
