(define (problem empty) (:domain bare) (:requirements) (:objects) (:init) (:metric) (:length) (:goal ()))
