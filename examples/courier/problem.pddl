; Four cities of ten stops each, and six parcels in each of their depots.
(define (problem four-cities)
  (:domain courier)
  (:objects
    city1 city2 city3 city4 - city
    depot1 depot2 depot3 depot4 - depot
    airport1 airport2 airport3 airport4 - airport
    house1-1 house1-2 house1-3 house1-4 house1-5 house1-6 house1-7 house1-8
    house2-1 house2-2 house2-3 house2-4 house2-5 house2-6 house2-7 house2-8
    house3-1 house3-2 house3-3 house3-4 house3-5 house3-6 house3-7 house3-8
    house4-1 house4-2 house4-3 house4-4 house4-5 house4-6 house4-7 house4-8 - house
    van1 van2 van3 van4 - van
    bike1 bike2 bike3 bike4 - bike
    plane1 plane2 - plane
    parcel1-1 parcel1-2 parcel1-3 parcel1-4 parcel1-5 parcel1-6
    parcel2-1 parcel2-2 parcel2-3 parcel2-4 parcel2-5 parcel2-6
    parcel3-1 parcel3-2 parcel3-3 parcel3-4 parcel3-5 parcel3-6
    parcel4-1 parcel4-2 parcel4-3 parcel4-4 parcel4-5 parcel4-6 - parcel)
  (:init
    (inside depot1 city1) (inside airport1 city1) (inside house1-1 city1) (inside house1-2 city1)
    (inside house1-3 city1) (inside house1-4 city1) (inside house1-5 city1) (inside house1-6 city1)
    (inside house1-7 city1) (inside house1-8 city1)
    (by-bike depot1) (by-bike house1-1) (by-bike house1-2) (by-bike house1-3) (by-bike house1-4)
    (parked van1 depot1) (parked bike1 depot1)
    (waits parcel1-1 depot1) (waits parcel1-2 depot1) (waits parcel1-3 depot1) (waits parcel1-4 depot1)
    (waits parcel1-5 depot1) (waits parcel1-6 depot1)
    (inside depot2 city2) (inside airport2 city2) (inside house2-1 city2) (inside house2-2 city2)
    (inside house2-3 city2) (inside house2-4 city2) (inside house2-5 city2) (inside house2-6 city2)
    (inside house2-7 city2) (inside house2-8 city2)
    (by-bike depot2) (by-bike house2-1) (by-bike house2-2) (by-bike house2-3) (by-bike house2-4)
    (parked van2 depot2) (parked bike2 depot2)
    (waits parcel2-1 depot2) (waits parcel2-2 depot2) (waits parcel2-3 depot2) (waits parcel2-4 depot2)
    (waits parcel2-5 depot2) (waits parcel2-6 depot2)
    (inside depot3 city3) (inside airport3 city3) (inside house3-1 city3) (inside house3-2 city3)
    (inside house3-3 city3) (inside house3-4 city3) (inside house3-5 city3) (inside house3-6 city3)
    (inside house3-7 city3) (inside house3-8 city3)
    (by-bike depot3) (by-bike house3-1) (by-bike house3-2) (by-bike house3-3) (by-bike house3-4)
    (parked van3 depot3) (parked bike3 depot3)
    (waits parcel3-1 depot3) (waits parcel3-2 depot3) (waits parcel3-3 depot3) (waits parcel3-4 depot3)
    (waits parcel3-5 depot3) (waits parcel3-6 depot3)
    (inside depot4 city4) (inside airport4 city4) (inside house4-1 city4) (inside house4-2 city4)
    (inside house4-3 city4) (inside house4-4 city4) (inside house4-5 city4) (inside house4-6 city4)
    (inside house4-7 city4) (inside house4-8 city4)
    (by-bike depot4) (by-bike house4-1) (by-bike house4-2) (by-bike house4-3) (by-bike house4-4)
    (parked van4 depot4) (parked bike4 depot4)
    (waits parcel4-1 depot4) (waits parcel4-2 depot4) (waits parcel4-3 depot4) (waits parcel4-4 depot4)
    (waits parcel4-5 depot4) (waits parcel4-6 depot4)
    (parked plane1 airport1) (parked plane2 airport3))
  (:goal (and
    (waits parcel1-1 house2-3) (waits parcel1-2 house3-4) (waits parcel1-3 house4-5) (waits parcel1-4 house1-4)
    (waits parcel1-5 house2-7) (waits parcel1-6 house3-8) (waits parcel2-1 house3-3) (waits parcel2-2 house4-4)
    (waits parcel2-3 house1-5) (waits parcel2-4 house2-4) (waits parcel2-5 house3-7) (waits parcel2-6 house4-8)
    (waits parcel3-1 house4-3) (waits parcel3-2 house1-4) (waits parcel3-3 house2-5) (waits parcel3-4 house3-4)
    (waits parcel3-5 house4-7) (waits parcel3-6 house1-8) (waits parcel4-1 house1-3) (waits parcel4-2 house2-4)
    (waits parcel4-3 house3-5) (waits parcel4-4 house4-4) (waits parcel4-5 house1-7) (waits parcel4-6 house2-8))))
