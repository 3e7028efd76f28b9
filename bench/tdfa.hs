-- list LOAD | tdfa MS: prints the microseconds of regex-tdfa with capture groups, and their spans.
module Main (main) where

import Control.Exception (evaluate)
import Data.Array (bounds, elems, (!))
import qualified Data.ByteString.Char8 as B
import Data.IORef
import Data.List (sort)
import GHC.Clock (getMonotonicTime)
import System.Environment (getArgs)
import Text.Printf (printf)
import Text.Regex.TDFA (CompOption (..), ExecOption (..), MatchArray, defaultCompOpt, defaultExecOpt)
import Text.Regex.TDFA.ByteString (Regex, compile, execute)

-- One match with every span worked out. The line comes from a reference, so that no round is shared with the one before.
match :: Regex -> IORef B.ByteString -> IO (Maybe MatchArray)
match regex source = do
  line <- readIORef source
  found <- either fail evaluate (execute regex line)
  mapM_ (\spans -> evaluate (sum (map (uncurry (+)) (elems spans)))) found
  return found

timed :: Int -> IO a -> IO Double
timed rounds call = do
  from <- getMonotonicTime
  let go :: Int -> IO ()
      go 0 = return ()
      go n = call >> go (n - 1)
  go rounds
  to <- getMonotonicTime
  return (to - from)

-- As measure.h: the median of 7 repeats of about ms milliseconds, none started after 5 seconds in all.
measure :: Double -> IO a -> IO Double
measure ms call = do
  begin <- getMonotonicTime
  let calibrate rounds = do
        took <- timed rounds call
        if took * 1e4 < ms then calibrate (rounds * 4) else return (took / fromIntegral rounds)
  first <- calibrate 1
  let rounds = max 1 (floor (ms * 1e-3 / first)) :: Int
      go :: Int -> [Double] -> IO [Double]
      go 0 times = return times
      go n times = do
        now <- getMonotonicTime
        if now - begin > 5
          then return times
          else do
            took <- timed rounds call
            go (n - 1) (took / fromIntegral rounds : times)
  times <- go 7 []
  return (1e6 * if null times then first else median times)

median :: [Double] -> Double
median times = (sorted !! ((count - 1) `div` 2) + sorted !! (count `div` 2)) / 2
  where
    sorted = sort times
    count = length times

main :: IO ()
main = do
  [ms] <- getArgs
  ere <- B.getLine
  line <- B.getLine
  tokens <- map read . words . B.unpack <$> B.getLine
  regex <- either fail return (compile defaultCompOpt {multiline = False} defaultExecOpt {captureGroups = True} ere)
  source <- newIORef line
  us <- measure (read ms) (match regex source)
  printf "%.4f\n" us
  found <- match regex source
  putStrLn (maybe "no match" (\spans -> concatMap (token spans) (pairs tokens)) found)
  where
    pairs (a : b : rest) = (a, b) : pairs rest
    pairs _ = []
    token :: MatchArray -> (Int, Int) -> String
    token spans (tag, group)
      | group > snd (bounds spans) || snd (spans ! group) == 0 = ""
      | otherwise = printf "%d:%d+%d " tag (fst (spans ! group)) (snd (spans ! group))
