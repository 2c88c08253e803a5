(define (problem lamp-1)
  (:domain lamp)
  (:objects hall attic - room box - thing)
  (:init (here hall) (in box hall)))
