class Vehicle {}
class Car extends Vehicle {}
class Truck extends Vehicle {}
class Van extends Car {}
