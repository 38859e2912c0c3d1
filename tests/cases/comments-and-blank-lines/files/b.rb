
;; # nor here
