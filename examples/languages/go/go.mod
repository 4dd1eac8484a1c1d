module verdict

go 1.15

require storklocker v0.0.0

replace storklocker => ../../../bindings/out/go
