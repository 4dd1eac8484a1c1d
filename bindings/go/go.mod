module storklocker

go 1.15
