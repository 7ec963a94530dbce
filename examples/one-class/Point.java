class Point {}
