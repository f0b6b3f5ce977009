// A hook for a wall: a plate with a square hole, and an arm. All its measures are exact as floats, and its text form shows all their digits.
// models/hook.stl and models/hook_text.stl were made of it by OpenSCAD 2021.01, Debian's package openscad:
//   openscad -o hook.stl --export-format binstl hook.scad
//   openscad -o hook_text.stl --export-format asciistl hook.scad
translate([24, 20, 22]) difference() {
    cube([16.5, 6, 20]);
    translate([5.625, -1, 11.25]) cube([5.25, 8, 5.25]);
}
translate([28.5, 25, 24]) cube([7.5, 12.125, 4.75]);
