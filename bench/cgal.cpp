// The grid of `gmr grid M` by CGAL's linear cell complex over a generalized map: M rows of M squares
// with a point at each corner, each face triangulated from its barycentre, and the cells counted.
// `bench/beside` times it where a C++ compiler and CGAL's headers are there (Debian: libcgal-dev).
#include <CGAL/Cartesian.h>
#include <CGAL/Linear_cell_complex_for_generalized_map.h>

#include <cstdlib>
#include <iostream>
#include <vector>

using Traits = CGAL::Linear_cell_complex_traits<2, CGAL::Cartesian<double>>;
using Complex = CGAL::Linear_cell_complex_for_generalized_map<2, 2, Traits>;
using Dart = Complex::Dart_handle;
using Point = Complex::Point;

// The dart at the beginning of an edge of a square, this many edges on from the first.
static Dart edge(Complex& complex, Dart dart, int edges) {
    for (int step = 0; step < edges; ++step) dart = complex.alpha<0, 1>(dart);
    return dart;
}

int main(int, char** words) {
    const int size = std::atoi(words[1]);
    Complex complex;
    std::vector<Dart> faces;
    faces.reserve(size * size);
    for (int y = 0; y < size; ++y)
        for (int x = 0; x < size; ++x)
            faces.push_back(complex.make_quadrangle(Point(x, y), Point(x + 1, y), Point(x + 1, y + 1), Point(x, y + 1)));
    for (int y = 0; y < size; ++y)
        for (int x = 0; x < size; ++x) {
            const Dart face = faces[y * size + x];
            if (x + 1 < size) {
                const Dart right = faces[y * size + x + 1];
                complex.sew<2>(edge(complex, face, 1), complex.alpha<0>(edge(complex, right, 3)));
            }
            if (y + 1 < size) {
                const Dart above = faces[(y + 1) * size + x];
                complex.sew<2>(edge(complex, face, 2), complex.alpha<0>(edge(complex, above, 0)));
            }
        }
    for (const Dart face : faces) complex.insert_barycenter_in_cell<2>(face);
    const std::vector<unsigned> dimensions = {0, 1, 2};
    const auto cells = complex.count_cells(dimensions);
    std::cout << "darts " << complex.number_of_darts() << " cells " << cells[0] << ' ' << cells[1] << ' ' << cells[2] << '\n';
}
