# Judges whether every shape of a picture that racklap drew lies inside its viewBox.
function value(name,    at, rest) {
    at = index($0, " " name "='")
    if (at == 0) return 0
    rest = substr($0, at + length(name) + 3)
    return substr(rest, 1, index(rest, "'") - 1) + 0
}
function judge(left, top, right, bottom) {
    shapes++
    if (left < -slack || top < -slack || right > wide + slack || bottom > high + slack) {
        print "outside the picture: " $0
        outside = 1
    }
}
BEGIN { slack = 0.11 }
/^<svg / {
    split(substr($0, index($0, "viewBox='") + 9), box, /[ ']/)
    wide = box[3]
    high = box[4]
}
/^<rect / {
    x = value("x")
    y = value("y")
    judge(x, y, x + value("width"), y + value("height"))
}
/^<circle / {
    x = value("cx")
    y = value("cy")
    r = value("r")
    judge(x - r, y - r, x + r, y + r)
}
/^<line / { judge(value("x1"), value("y1"), value("x2"), value("y2")) }
/^<text / { judge(value("x"), value("y"), value("x"), value("y")) }
END { exit outside || shapes == 0 }
