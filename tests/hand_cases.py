"""The cases that were reckoned by hand, of document 01 and of the orders.

CASES has (what is tried, name of the request, argument words, answer line).
"""
import document_cases
import finest_cases
import limits_cases
import quadratic_cases
import width_cases

CASES = [*document_cases.CASES, *width_cases.CASES, *finest_cases.CASES,
         *quadratic_cases.CASES, *limits_cases.CASES]
