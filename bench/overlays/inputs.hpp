// What is overlaid: the same polygons in each run.
#ifndef INPUTS_HPP
#define INPUTS_HPP

#include "shapes.hpp"

/// All coordinates lie between this number and its negative.
constexpr double range = 536'000'000;

itree_point rounded(double x, double y);

/// Stars of ten points around centres anywhere in a square, each of which meets some others.
Shape stars(std::size_t size, unsigned seed);

/// The squares of one colour of a board with so many in a row and in a column. They touch at their corners.
Shape board(std::int32_t x, std::int32_t y, std::int32_t side, std::int32_t columns, std::int32_t rows);

/// A circle with two hundred waves.
Shape wavy(std::size_t size, double x, double y);

/// How many edges the input has.
std::size_t size_of(const Input &input);

/// The sum of the lengths of its edges.
double length_of(const Input &input);

/// Inputs of about so many edges, each made when it is asked for.
std::vector<Input (*)(std::size_t size)> generated();

/// The world's land of a file that bench/land.py writes, units in a degree, and the first column of degrees and how
/// many there are. Some of its coastlines cross, which others don't take: so the land is what ours unites it to.
Shape land_alone(const char *file, std::int32_t &degree, std::int32_t &west, std::int32_t &columns);

/// The world's land of a file that bench/land.py writes, and with it cells of a grid, and the same land moved aside.
/// Some of its coastlines cross, which GEOS and Boost.Geometry don't take: so the land is what ours unites it to.
std::vector<Input> land_of(const char *file);

#endif
