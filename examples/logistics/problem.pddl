; Two cities, each with a depot, an airport and a truck. One package lies in the first depot.
(define (problem one-package) (:domain logistics)
(:objects
  north south - city
  north-depot south-depot - depot
  north-airport south-airport - airport
  north-truck south-truck - truck
  plane - airplane
  parcel - package)
(:init
  (in-city north-depot north) (in-city north-airport north)
  (in-city south-depot south) (in-city south-airport south)
  (at north-truck north-depot) (at south-truck south-airport)
  (at plane north-airport) (at parcel north-depot))
(:goal (and)))
