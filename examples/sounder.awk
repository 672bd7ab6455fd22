# Draws a picture such as a sounder has on its display, as a PPM of `width` by `height` pixels, the same each time for the same
# `from`, which is where along the bottom it begins: blue water, a shoal of fish in it, the bright echo of the bottom, and brown
# below; all with noise.
function noise(n) { seed = seed * 16807 % 2147483647; return seed % n }

# How far below the bottom a pixel is, in heights of the picture; below 0 in the water.
function below_bottom(x, y) { return y / height - 0.7 - 0.1 * sin(x / 37) - 0.03 * sin(x / 11) }

# A fish is an arch: it comes nearer, passes under the boat, and goes.
function in_fish(x, y, at, depth) { return (x - at) ^ 2 < 196 && (y / height - depth - ((x - at) / 60) ^ 2) ^ 2 < 0.0002 }

function colour(x, y, depth) {
    if (in_fish(x, y, 130, 0.3) || in_fish(x, y, 165, 0.36) || in_fish(x, y, 290, 0.45) || in_fish(x, y, 400, 0.25)) return 240 - noise(40) " " 220 - noise(60) " 60"
    if (depth < 0) return noise(12) " " 30 + noise(12) " " 90 + noise(40)
    if (depth < 0.05) return 255 - noise(30) " " 200 - noise(90) " 20"
    return 120 - noise(20) " " int(90 * (1 - depth)) " " 10 + noise(20)
}

BEGIN {
    seed = 2435
    print "P3", width, height, 255
    for (y = 0; y < height; y++)
        for (x = 0; x < width; x++) print colour(from + x, y, below_bottom(from + x, y))
}
