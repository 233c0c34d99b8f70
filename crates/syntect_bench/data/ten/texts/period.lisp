;;; -*- Lisp -*- how long a moon takes
#| a comment #| within |# a comment |#
(defun période (rayon &optional (masse 1.0))
  "The days of one turn; \ends here."
  (if (< rayon 0) ; below the ground
      nil
      (* 2 π (sqrt (/ rayon masse)))))

(setq moons '((:name "Io" :ratio 1/2)
              (:name "Eu\"ropa" :ratio -2.5)))
(let ((x +3) (y 3x))
  `(list ,x ,@(rest y) t))
)
(defmacro never () (lambda (x)
  (période #|here|# x)))
