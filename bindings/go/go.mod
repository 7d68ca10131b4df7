module hagzimot.invalid/hagzimot

go 1.19
